"""What judges: the plain model, the judge of sessions, and a reader of files."""
