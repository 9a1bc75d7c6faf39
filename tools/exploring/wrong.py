"""What is raised where a run is wrong."""


class Wrong(Exception):
    """Why a run is wrong."""
