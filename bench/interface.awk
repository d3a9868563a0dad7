# Prints an interface file of so many blocks of 30 lines, which rxgen takes too: awk -v blocks=100 -f bench/interface.awk
BEGIN {
  print "package BENCH_"
  print "prefix S"
  for (i = 1; i <= blocks; i++) {
    printf "const MAXNAME%d = %d;\nconst MAXLIST%d = 0x%x;\n", i, 1 + i % 200, i, 1 + i % 50
    printf "typedef opaque Token%d<MAXNAME%d>;\ntypedef char Name%d[32];\n", i, i, i
    printf "enum Kind%d {\n  None%d,\n  File%d,\n  Folder%d = 010\n};\n", i, i, i, i
    printf "struct Fid%d {\n  afs_uint32 Volume;\n  afs_uint32 Vnode;\n  afs_uint32 Unique;\n  Name%d Name;\n};\n", i, i
    printf "struct Entry%d {\n  Fid%d Fid;\n  Entry%d *Next;\n};\n", i, i, i
    printf "typedef Fid%d Fids%d<MAXLIST%d>;\n", i, i, i
    printf "union Held%d switch (Kind%d Kind) {\ncase None%d:\n  void;\ncase File%d:\n", i, i, i, i
    printf "  Fid%d One;\ndefault:\n  Fids%d All;\n};\n", i, i
    printf "Fetch%d(IN Fid%d *Fid, afs_int32 Pos,\n  OUT Held%d *Found, INOUT afs_int32 *Left) = %d;\n", i, i, i, i
  }
}
