"""How many files a program may have open."""

import resource


def many_files():
    """As many as the system lets it have: a thousand flows are more than the usual limit."""
    most = resource.getrlimit(resource.RLIMIT_NOFILE)[1]
    resource.setrlimit(resource.RLIMIT_NOFILE, (most, most))
