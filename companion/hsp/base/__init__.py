"""What every part of hsp stands on: files, programs, numbers, texts, bounds."""
