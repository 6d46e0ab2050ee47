"""The tests from outside. They may use `tools`; `tools` uses neither them nor `bench`."""
