"""The command `exifnorm-pictures`: its arguments, its output, its exit statuses, and a module for each command."""
