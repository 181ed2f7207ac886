"""The test programs in Python form a package, so that a program in one folder can import programs
in another.
"""
