@A class C {
  char c = 'ab'; }
