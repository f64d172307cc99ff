"""The exit statuses of the command, as `--help` and the manual page list them. If several apply, the greatest counts."""

SUCCESS = 0  # done, or the same
DIFFERENCE = 1  # something differs, also after repair, is missing or was moved; a mended copy differs in a printed value
UNKNOWN = 2  # it can't be decided wholly: a block is refused, a picture or a part was not read, only a MakerNote moved; no remedy worked
USAGE = 3  # the arguments are refused
FAILURE = 4  # the command itself failed: the catalogue, a stream, the disk, the memory
STOPPED = 130  # by the keyboard
