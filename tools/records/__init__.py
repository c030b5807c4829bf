"""Records of other controllers: codes of events, lines, pictures; and two records with their tables."""
