"""What all unit tests share: properties have no deadline, since a busy machine would fail them."""

from hypothesis import settings

settings.register_profile("here", deadline=None, database=None)
settings.load_profile("here")
