"""What the scripts for SUMO share, by subject.

  network, programs, lights   what a network tells of its traffic lights
  stages, conflicts, service  groups, stages and times; who is in conflict; which lanes and people a stage serves
  site, plan, program, files  a site, its plan, its programs, its files
  detectors, drive, scenario  a run: detectors, lights with their controllers, SUMO's call and what came of it
  study                       rows and tables of many runs
"""
