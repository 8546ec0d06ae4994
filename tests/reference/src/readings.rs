//! Texts about every doubtful place in the papers' rules for text, under the sort that says what is in doubt.
//! In each list a broken bar parts the texts.

/// Parts of a text; each is put where a token may stand, on both sides of a sentence and outside functions.
pub const PARTS: &[(&str, &str)] = &[
    ("blanks", " ¦\t¦\n¦\r¦\r\n¦\n\r¦\x0B¦\x0C¦\0¦\x1A¦\x7F¦A\tB¦A\nB¦A\rB¦A\x0BB¦'a'\t'b'¦1\n2¦ \t\r\n¦\x08¦\x1B"),
    (
        "bytes that begin no token",
        "&¦.¦\\¦#¦%¦!¦?¦@¦[¦]¦^¦|¦~¦+¦-¦_¦/¦*¦`¦,¦:¦a¦z¦x1¦A.B¦A+B¦A,B¦1-2¦'a'+'b'¦eX.¦u.1¦r¦/ *¦//¦_A¦-A",
    ),
    (
        "call brackets",
        "<F>¦< F>¦<\tF>¦<\nF>¦</**/F>¦<\n*c\nF>¦<f>¦<>¦<¦<<F>>¦<(F)>¦<'F'>¦<1>¦<s.1>¦<eX>¦<_F>¦<-F>¦<F¦>¦<F>>\
         ¦<F <G> >¦<F<G>>¦<Abcdefghijklmno>¦<Abcdefghijklmnop>¦<F.>¦<F'a'>¦<F(>)¦(<F)>¦<F1 2>¦<+ 1 2>¦<=¦<;¦<}\
         ¦<{¦<  F 1>¦<\r\nF>¦<\r*c\rF>",
    ),
    (
        "star in the first column",
        "\n* a\n¦\r* a\r¦\n*¦ * a\n¦\n * a\n¦\n*/*\n¦/*\n*/¦/* */* a\n¦/* */\n* a\n¦\n**\n¦A*\n¦\n*'a\n\
         ¦\n*/* */ B\n¦\t*\n¦\n\n*\n*\n¦/*\n* a\n* b\n*/A¦/*\n*/* c\n¦'a'\n*'b\n'c'",
    ),
    (
        "line ends",
        "'a\nb'¦'a\rb'¦'a\r\nb'¦\"a\nb\"¦\"a\rb\"¦'a\n'¦'\n¦'a'\r*b\r'c'¦'a'\r\n*b\r\n'c'¦\r*a\nB¦\n*a\rB\
         ¦'a''\r'¦\n\r*a\n\r¦\"\r\"¦'\r'",
    ),
    (
        "comments",
        "/**/¦/*/¦/*/*/¦/* /* */¦/* /* */ */¦/***/¦/****/¦/* * / */¦A/**/B¦1/**/2¦'a'/**/'b'¦s1/**/s2¦s/**/1\
         ¦s./**/1¦/*'*/¦/*\"*/'a'/*'*/¦/*\n\r\0\x7F*/¦*/¦/* */ */¦A/*x*/¦/*x*/A¦/**/*/¦/*<F*/¦/*;}*/",
    ),
    ("cut off by the end", "'¦\"¦'a¦\"a¦'a\"¦\"a'¦'a''¦'''¦/*¦/* a¦/*/¦/**¦/* *¦\"\"\"¦A/*¦1'"),
    ("strings of no characters", "''¦\"\"¦'' ''¦''\"\"¦''A¦A''¦('')¦<F''>¦''s1¦s1''¦1''2¦'' = ''¦'';''¦''}"),
    (
        "characters",
        "'\\'¦'\\''¦'\\\\'¦'\t'¦'\0'¦'\x7F'¦'\x1A'¦'\x0B\x0C'¦'{}=;()<>'¦'/*'¦'*/'¦'s.1'¦'$'¦'12'¦\"\\\"\
         ¦\"\\\"\"¦'\\n'",
    ),
    (
        "doubled quotes",
        "'a''b'¦''''¦''''''¦\"\"\"\"¦\"a\"\"b\"¦'\"'¦\"'\"¦'\"\"'¦\"''\"¦'a'\"b\"¦'a' 'b'¦'a''¦''a'¦'''a'¦'a'''\
         ¦''a''¦'a''''b'¦'''' ''''",
    ),
    (
        "real numbers",
        "1.5¦12E5¦1E5F¦1.5E5¦18E-7¦18E+15¦1e5¦12.¦12.x¦12. 5¦12 .5¦.5¦-1.5¦+1E5¦12E¦12Ex¦12E_5¦12 E5¦0.0¦00E00\
         ¦1.E5¦1.5E¦1E¦1E5.5¦12.A¦12.'a'¦1..5¦4294967296.5¦4294967296E¦1.5.5¦1E5E5¦1.-5¦1EE5¦2E-5\
         ¦2E+5¦00E-0 1¦7E_¦7E--5",
    ),
    (
        "macrodigits",
        "0¦00¦007¦4294967295¦04294967295¦4294967296¦004294967296¦4294967299¦4294967300¦9999999999¦10000000000\
         ¦42949672950¦18446744073709551616¦000000000000000000000000000001¦12Abc¦12s.1¦12s1¦12'a'¦12abc¦12(1)\
         ¦12 12¦1_000¦1-0¦12e¦12<F>¦99999999999999999999999¦00000000000000000000004294967295\
         ¦00000000000000000000004294967296",
    ),
    (
        "variables without a dot",
        "s1¦t1¦e1¦sX¦tX¦eX¦s1s2s3¦s1t1e1¦sXsY¦s1sX¦t12¦eTree¦sx¦s¦t¦e¦s-¦s_¦s1-¦s1_¦s1A¦sA1¦sAB¦sXs¦sXt¦sXe¦sXa\
         ¦s1'a'¦s1(s2)¦s1<F>¦s1.2¦s1 2¦sX.¦s1/**/2¦s1s.2¦s1s¦S1¦T.1¦sXe.Y¦s1ee¦eTe¦eTest¦sEs5¦s 1¦s\n1¦t1-a¦eX_1¦sA--",
    ),
    (
        "variables with a dot",
        "s.1¦t.x¦e.X¦s.1s.2¦s.Xs.2¦s.¦s. X¦s..X¦s.-a¦s._a¦s.a-¦s.a_b¦s.1a¦s.1-¦s.a1¦s.A1-¦s.12¦s.1.2¦s.X.Y¦s.'a'\
         ¦s.(1)¦s.1(s.2)¦s.1'a'¦s.1E5¦s.E5¦s.1 s.2¦s.\n1¦s.X'a'¦s.X<F>¦s.$¦s.\x7F¦e.12e.5",
    ),
    (
        "equal indices",
        "eX e.X e.x¦s.01 s.1 s1¦s.A-b s.a_B s.A-B¦s.0 s.00 s0¦s.O s.0¦s.ab s.AB s.aB s.Ab¦s.1 s.10¦s.x1 s.X1\
         ¦s.a- s.a_¦s.a--b s.a-_b s.a-b¦s.10 s.010¦sX s.X1¦e.4294967296 e.0¦s.18446744073709551617 s.1\
         ¦s.b s.c s.B¦t.0012 t.12 t.120¦s.l s.1 s.I s.i",
    ),
    (
        "sizes of indices",
        "s.abcdefghijklmno¦s.abcdefghijklmnop¦s.Abcdefghijklm-1¦s.Abcdefghijklm--1¦e.123456789012345\
         ¦e.1234567890123456¦e.123456789012345678901234567890¦t.0000000000000000000000001 t1¦s.A_B_C_D_E_F_G_H\
         ¦s.A_B_C_D_E_F_G_HI¦s.a23456789012345¦s.a234567890123456¦s.4294967295 s.4294967296¦s.99999999999",
    ),
    (
        "one index for several kinds",
        "sX eX¦sX tX eX¦s.0 e.0 t.0¦eX sX eX sX¦s1 s2 t1 t2 e1 e2¦tX(sX)eX¦eX tX¦s.x t.X e.x¦e0s0t0\
         ¦t.a e.a s.a t.a¦sXtX¦s1e1s1",
    ),
    (
        "identifiers",
        "A¦Z9¦A-¦A_¦A--b¦A__B¦AbC ABC Abc¦A-b A_b¦A-b A-B Ab¦A1 A-1 A_1¦Abcdefghijklmno¦Abcdefghijklmnop\
         ¦ABCDEFGHIJKLMNO Abcdefghijklmno¦A-------------b¦A--------------b¦aB¦A.¦A$¦F f¦Add Sub Mul¦A'a'¦A(B)\
         ¦A\x7F¦Abcdefghijklmnopqrstuvwxyz¦A1234567890123456¦B A B¦F F¦A0 AO¦A'b'C",
    ),
];

/// Whole texts.
pub const TEXTS: &[(&str, &str)] = &[
    ("empty texts", "¦ ¦\n¦\t\r\n¦/**/¦*¦* a¦* a\n¦/* a */\n* b\r¦\n\n*\n¦ /* * */ ¦*/¦/**/ ¦\r*\r"),
    (
        "semicolons outside functions",
        "F{=};G{=}¦F{=;};G{=;}¦;F{=}¦F{=};;G{=}¦F{=};¦F{=;};¦F{=}; ¦F{=};/**/¦F{=};\n*¦;¦;;¦F{=}G{=}\
         ¦F{=};G{=};H{=}¦F{=};G{=};¦F;{=}¦F{=};1¦F{=};}¦F{=};@¦F{=}/**/;/**/G{=}¦F{=} ; ; ¦F{=};'a'¦F{=};''\
         ¦F{=}; ;G{=}¦F{=};\n;\nG{=}¦F{=;};;;G{=}¦F{=}/**/;/**/;G{=}¦/**/;F{=}¦ ; F{=}¦;;F{=}",
    ),
    (
        "semicolons inside functions",
        "F{=}¦F{=;}¦F{}¦F{;}¦F{=;;}¦F{=;;=}¦F{A}¦F{A;}¦F{=;A}¦F{=A}¦F{A=B;C=D}¦F{A=B;C=D;}¦F{A=B C=D}¦F{==}\
         ¦F{=;=;=;}¦F{=;=;=;;}¦F{'a'}¦F{''}¦F{=;''}¦F{'';}¦F{=;'';}¦F{=;''=}¦F{ }¦F{/**/}¦F{}G{=}¦F{\n*a\n}",
    ),
    (
        "ends of functions with a bracket open",
        "F{=(}¦F{=(;}¦F{(}¦F{(=)}¦F{=<F}¦F{=<F;}¦F{=)}¦F{=(()}¦F{=()}¦F{)=}¦F{(=;}¦F{=(})¦F{=<F(>)}¦F{(A}¦F{=A}\
         ¦F{=A}}",
    ),
    (
        "tokens that fit nowhere",
        "F{={;}¦}¦{¦F}¦F{=}}¦F{=}{¦'a'¦1¦s1¦(¦)¦<F>¦=¦F G{=}¦F 1{=}¦F s1{=}¦F={=}¦F(){=}¦F<G>{=}¦F'a'{=}¦F''{=}\
         ¦F{{=}¦F{{=}}¦F{=}1¦F{=}'a'¦F{=}=¦F{=}(¦F{=}>¦F{=}<F>¦F{=}eX¦F{ F{=} }¦F{= F{=} }¦F{F}¦F F F",
    ),
    (
        "the first bad token",
        "F{=s1}@¦F{)=}'a¦F{=)1.5¦F{<F>=}/*¦@'¦F{=} 1 @¦F{=A;;}$¦F{}$¦F{=(}4294967296¦F{='a\n)}¦F{)'a\n=}¦; @\
         ¦F @{¦F{eX=eY t12}",
    ),
    (
        "early ends",
        "F¦F ¦F/**/¦F{¦F{ ¦F{A¦F{(¦F{()¦F{=¦F{=A¦F{=(¦F{=<F¦F{=<F>¦F{=;¦F{=; ¦F{=;A¦F{=;\n*}¦F{=}G¦F{=}G{¦F{=};\
         ¦F{=};G¦F{s¦F{s.¦F{s1¦F{=<¦F{='¦F{=/¦F{=/*¦F{=1.¦F{=1E¦F{=Abcdefghijklmnop¦F{=12¦F{''",
    ),
    (
        "directives",
        "$ENTRY Go{=}¦$EXTERN F;¦$EXTRN F,G;¦$EXTERNAL F;F{=}¦F{=}$ENTRY G{=}¦F{=$}¦F{$=}¦$¦ $¦F$¦$F{=}¦F{=}$\
         ¦/**/$ENTRY F{=}¦\n*a\n$ENTRY F{=}",
    ),
    (
        "one function twice",
        "F{=}F{=}¦F{=A}f{=}¦F{=}F{=}F{=}¦Fa{=}FA{=}¦F-a{=}F_a{=}¦F{=F}F{F=}¦F{=}G{=<F>}F{=}¦F{=};F{=}",
    ),
    (
        "order of numbers",
        "A{B=C}D{=E}¦F{=<G H>}G{=F}¦A{=<B<C D>E>F}¦F{A=A B;B=C A}¦F{e2 s1 e1 s2=s2 e1 s1 e2}\
         ¦F{sA sB=sA;sB sA=sB}¦F{sA=;=sA}¦F{t1(e1(s1)e2)t2=e2 t1}¦F{=/*A*/B'C'D}¦F{e1=e1;e2=e2;e3=e3}¦F{=G}G{=}\
         ¦F{<G>=}",
    ),
];
