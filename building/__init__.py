"""What `build.py` plans a build by."""
