//! Texts that are not read, each with the whole answer.

pub const REFUSED: [(&str, &str); 23] = [
    (
        "pre true;\nv0 := v1 % 2;\npost true\n",
        "refused 40 19
line 2, column 10: `%` is no word and no sign of scripts
    v0 := v1 % 2;
             ^
here may stand: + - * div mod ;
",
    ),
    (
        "v0 is count\n\npre 0 <= v0;\n  count := 0;\npost true\n",
        "refused 40 28
line 4, column 3: count is written v0 in a script
      count := 0;
      ^
here may stand: skip assert if while, or a variable (v0 to v1023)
",
    ),
    (
        "pre true;\n\tv0\t:= 1; # one\npost true\n",
        "refused 40 20
line 2, column 11: comments begin with # and stand before `pre` only
    \tv0\t:= 1; # one
    \t  \t      ^
here may stand: skip assert if while post, or a variable (v0 to v1023)
",
    ),
    (
        "Pre true; skip; post true",
        "refused 40 0
line 1, column 1: `Pre` is no word and no sign of scripts
    Pre true; skip; post true
    ^
here may stand: pre
",
    ),
    (
        "pre größe < 1; skip; post true",
        "refused 40 4
line 1, column 5: `gr` is no word and no sign of scripts
    pre größe < 1; skip; post true
        ^
here may stand: true false not when mark ( -, or a number, or a variable (v0 to v1023)
",
    ),
    (
        "pre true; skip; post 1 ≤ v0",
        "refused 40 23
line 1, column 24: `≤` is no word and no sign of scripts
    pre true; skip; post 1 ≤ v0
                           ^
here may stand: + - * div mod < <= = <>
",
    ),
    // Nothing may stand there, since `then` before it may not.
    (
        "pre then ?",
        "refused 40 9
line 1, column 10: `?` is no word and no sign of scripts
    pre then ?
             ^
",
    ),
    (
        "pre 0 <= v0;\r\nwhile 0 < v0\r\n\tdo v0 := v0 - 1 end;\r\npost v0 = 0\r\n",
        "refused 41 29
line 3, column 2: no script has `do` here
    \tdo v0 := v0 - 1 end;
    \t^
here may stand: + - * div mod and or implies keep
",
    ),
    (
        "# no precondition\nskip; post true\n",
        "refused 41 18
line 2, column 1: no script has `skip` here
    skip; post true
    ^
here may stand: pre
",
    ),
    (
        "pre (v0) and true; skip; post true",
        "refused 41 9
line 1, column 10: no script has `and` here
    pre (v0) and true; skip; post true
             ^
here may stand: + - * div mod < <= = <>
",
    ),
    // The end of a text is its last byte's; the caret stands behind the last token.
    (
        "pre true;\nskip\n\n",
        "refused 41 16
line 2, column 5: no script ends here
    skip
        ^
here may stand: ;
",
    ),
    (
        "pre true; skip; post true;",
        "refused 41 25
line 1, column 26: no script has `;` here
    pre true; skip; post true;
                             ^
here may stand: and or implies, or the end of the text
",
    ),
    (
        "pre true; skip; post v0 < 1 # all",
        "refused 40 28
line 1, column 29: comments begin with # and stand before `pre` only
    pre true; skip; post v0 < 1 # all
                                ^
here may stand: + - * div mod and or implies, or the end of the text
",
    ),
    // The last token is an expression, so the text cannot end there.
    (
        "pre true; skip; post v0 v1",
        "refused 41 24
line 1, column 25: no script has `v1` here
    pre true; skip; post v0 v1
                            ^
here may stand: + - * div mod < <= = <>
",
    ),
    (
        "v0 := 1;\npost true",
        "refused 41 0
line 1, column 1: no script has `v0` here
    v0 := 1;
    ^
here may stand: pre
",
    ),
    (
        "# größe\r\nv0 is x\r\n v0 = x\r\npre true; skip; post true",
        "refused 40 26
line 3, column 7: x is written v0 in a script
     v0 = x
          ^
",
    ),
    (
        "pre true;\nv1024 := 007;\npost true",
        "refused 42 10
line 2, column 1: variables are v0 to v1023
    v1024 := 007;
    ^
",
    ),
    (
        "pre true;\nv0 := 007;\npost true",
        "refused 42 16
line 2, column 7: a number has no zeros in front
    v0 := 007;
          ^
",
    ),
    (
        "pre v007 < 1; skip; post true",
        "refused 42 4
line 1, column 5: a number has no zeros in front
    pre v007 < 1; skip; post true
        ^
",
    ),
    (
        "pre true; v0 := -2147483648 - 2147483648; post true",
        "refused 42 30
line 1, column 31: constants go up to 2147483647, or 2147483648 right after a unary minus
    pre true; v0 := -2147483648 - 2147483648; post true
                                  ^
",
    ),
    (
        "pre true; while true keep mark(1) = 0 fall 0 do skip end; post true",
        "refused 42 31
line 1, column 32: mark(k) names the k-th loop outward in whose body it stands, and here it stands in none (a loop's own keep and fall are not in its body)
    pre true; while true keep mark(1) = 0 fall 0 do skip end; post true
                                   ^
",
    ),
    (
        "pre true; while true keep true fall 0 do
while true keep true fall 0 do assert mark(3) = 0 end end; post true",
        "refused 42 84
line 2, column 44: mark(k) names the k-th loop outward in whose body it stands, and here it stands in those of 2 loops
    while true keep true fall 0 do assert mark(3) = 0 end end; post true
                                               ^
",
    ),
    (
        "pre true;
while true keep true fall 0 do
  while true keep true fall 0 do skip end; if true then skip else skip end;
  if true then assert mark( 2 ) = 0 else skip end
end; post true",
        "refused 42 145
line 4, column 29: mark(k) names the k-th loop outward in whose body it stands, and here it stands in that of 1 loop
      if true then assert mark( 2 ) = 0 else skip end
                                ^
",
    ),
];
