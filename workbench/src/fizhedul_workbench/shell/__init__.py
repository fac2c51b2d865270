"""The shell: a prompt over one database."""
