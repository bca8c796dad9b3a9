%parse-generics /
%%s->/:;t ->  // x :;