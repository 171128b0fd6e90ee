"""Rows written out, large and deep inputs, and lengths that are only declared."""
from .shared import octets

NULL_REPLY = octets("80000018 00000001 00000001 00000000 00000000 00000000 00000000")
MANY = b"typedef int many[300000];"
WIDE = b"struct s { s *next; " + b"".join(b"int a%d; " % number for number in range(1000)) + b"}; typedef s *wide;"
