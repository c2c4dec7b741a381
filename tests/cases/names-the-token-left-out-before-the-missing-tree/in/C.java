} enum
