# The date of the registry in the library. Written by data/registry/generate.py. Do not edit.
REGISTRY_DATE = 2025-08-25
