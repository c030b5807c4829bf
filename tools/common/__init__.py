"""What scripts of all subjects share: words and files read, and commands run within a time."""
