"""What is said where an object, a file or a value isn't as it has to be."""


class Wrong(Exception):
    """Why, in one line that names the section, the field or the file."""


class NoReader(Exception):
    """pyelftools, which reads object files, isn't there."""
