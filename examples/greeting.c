/* What puts.lst prints. */
const char greeting[] = "hello";
