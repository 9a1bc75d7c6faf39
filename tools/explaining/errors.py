"""Why the tree answers an error, by its name."""

ERRORS = {
    "E1 NoEnt": "a name on the way isn't there",
    "E2 Exists": "something stands there already",
    "E3 NotDir": "a file stands where a directory has to",
    "E4 IsDir": "a directory stands where a file has to",
    "E5 NotEmpty": "the directory has entries",
    "E6 Invalid": "the root can't be moved or removed, nor can a path go below itself",
    "E7 TooBig": "a file has 1048576 bytes at most",
    "E8 DirFull": "a directory has 4096 entries at most",
}
