float
#
