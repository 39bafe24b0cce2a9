"""The checks of docs.py, a module for each subject: they read the repository, and prove and run nothing of it."""
