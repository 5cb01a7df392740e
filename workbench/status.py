"""The exit statuses: the answer yes, the answer no, and neither."""

YES, NO, FAULT = 0, 1, 2
