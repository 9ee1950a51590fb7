import sys
from typed_path import PathTraversalAttack, UnixPath

for word in sys.argv[1:]:
    try:
        print(UnixPath("/srv").join_checked(word))
    except PathTraversalAttack:
        print("refused")
