# The version of CLDR in the library. Written by data/likely/generate.py. Do not edit.
CLDR_VERSION = 48.2
