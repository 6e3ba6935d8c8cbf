"""A plan that HAProxy answers by: where each server is asked, the kinds of handles, networks, and the files."""
