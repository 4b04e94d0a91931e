"""A second, slow implementation of the rules in docs/, to compare the proved programs with."""
