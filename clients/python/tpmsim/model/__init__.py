"""A second implementation of the device, in plain Python, which shares no code with `tpmsim`."""
