"""The doctor explains each fault of hsplan, and what is accepted and seldom meant."""

from hsp.doctor.examine import Examined, examined, examined_words

__all__ = ["Examined", "examined", "examined_words"]
