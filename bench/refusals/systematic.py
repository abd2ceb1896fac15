"""Systematic texts for each kind of refusal: what offends alone, two offences in both orders on two lines and on one
line, ends in the middle, depth at its limit, names and numbers at their edges."""

HEAD = "#pragma dcc text 1\n#pragma dcc stack 0 256\n"
GLOBALS = "#pragma dcc at 256\nint g; unsigned char a[4] = {1, 2};\nint *q; int *r[2]; long big;\n"
LOCALS = "    int x; long y; unsigned char c; int *p; long *l; auto int m; int n[3];\n"
TAIL = """int f(int i, int *s)
{
    return i;
}
void v(void)
{
}
int *w(auto int k, register long o)
{
    return q;
}
"""


def body(statements, tail=TAIL, more=""):
    """A text whose first function has the statements, the first of them on line 9."""
    return HEAD + GLOBALS + "void start(void)\n{\n" + LOCALS + statements + "\n}\n" + more + tail


# Statements that stand alone. What offends in each is at its first line or told by the reference.
STATEMENTS = [
    # fine
    ";", "x = 1;", "L: ;", "L: M: x = 1;", "x = f(1, p);", "f(1, q);", "v();", "p = w(1, 2);", "p = n;", "p = &m;",
    "*p = 1;",
    "*(p + 1) = 2;", "x = *(n + 1);", "q = p - 1;", "x = p == q;", "x = 1 ? 2 : 3;", "p = 1 ? p : q;", "x = (int)p;",
    "p = (int *)x;", "y = (long)p;", "c = dos_getch();", "dos_puts(a);", "dos_puts((unsigned int)a);", "dos_putc(x);",
    "goto L;\nL: ;", "for (;;) { break; }", "do { continue; } while (x);", "switch (x) { case 1: break; }",
    "switch (c) { case 0: case 0xFFFF: break; default: break; }", "switch (x) { case 1: break; break; }",
    "while (x) { switch (x) { case 1: continue; break; } }", "return;", "x = a--x;", "x = x--m;", "x = - -x;",
    "x = !!x;",
    "x = -(x);", "x = ((((x))));", "x = *&m;", "x = *(int *)256;", "*(int *)256 = 1;", "x = - - - 1;",
    "#pragma dcc depth 4\nv();", "#pragma dcc depth 4294967295\nv();", "if (x) { } else { }", "if (x) { }\nx = 2;",
    "switch (x) { case 1U: break; default: x = 1; break; }", "x = x/*p;", "x = 0;", "{ }", "x = 07;",
    # names
    "u = 1;", "x = u;", "x = 1 + u;", "x = f;", "x = 1 + f;", "x = 1 + f(2);", "x = f(1) + 2;", "u();", "x();",
    "x = x();",
    "x = u();", "f = 1;", "*f = 1;", "*u = 1;", "&u = 1;", "goto K;", "L: ;\nL: ;",
    "switch (x) { case 1: break; case 1: break; }",
    "switch (x) { case 1: case 1: break; }", "switch (x) { case 1: break; case 0x1: break; }",
    "switch (x) { default: break; default: break; }",
    "switch (x) { case 1: switch (x) { case 1: break; } break; case 2: break; }",
    "goto f;", "goto x;", "x: x = 1;", "f: f(1, p);", "start: ;", "dos_putc: ;", "dos_putc = 1;", "x = dos_putc;",
    "dos_puts2(1);",
    # types
    "x = p;", "p = x;", "p = 1;", "p = l;", "x = p + p;", "x = 1 + p;", "p = 1 + p;", "x = p - p;", "x = p * 2;",
    "x = 2 * p;",
    "x = p & 1;", "x = -p;", "x = ~p;", "x = !p;", "x = *x;", "x = *1;", "*x = 1;", "x = &x;", "p = &x;", "p = &n;",
    "p = &p;",
    "x = &1;", "x = &(x);", "p = &(m);", "p = &*p;", "x = p ? 1 : 2;", "x = 1 ? p : 2;", "x = 1 ? 2 : p;",
    "p = 1 ? p : l;", "if (p) { }",
    "while (p) { }", "do { } while (p);", "switch (p) { case 1: break; }", "switch (y) { case 1: break; }",
    "switch (c) { case 1: break; }",
    "x = p < 1;", "x = p == 0;", "x = 0 == p;", "x = p == l;", "x = p && 1;", "x = 1 || p;", "x = 1 << p;",
    "x = p >> 1;", "x = p % p;",
    "n = 1;", "n = p;", "*n = 1;", "a = 1;", "n = f(1, p);", "x = r;", "r = 1;", "x = *r;", "q = *r;", "f();",
    "f(1);", "f(1, p, 2);",
    "f(p, p);", "f(1, 2);", "f(1, l);", "v(1);", "x = v();", "p = v();", "x = w(1, 2);", "y = f(1, p);",
    "p = f(1, p);", "dos_putc();",
    "dos_putc(p);", "dos_putc(1, 2);", "x = dos_putc(1);", "x = dos_getche();", "p = dos_getch();", "dos_getch(1);",
    "return 1;",
    "return p;", "return u;", "x = (int *)y;", "x = (int)u;", "x = -(1 + p);", "x = (p + 1) * 2;", "x = *(1);",
    "x = (x == p) + u;",
    "x = u + p * 2;", "x = p * u;", "x = (p) * (u);", "*p = p;", "*(p + p) = 1;", "*(p * 2) = u;", "dos_puts(p);",
    "u = v();",
    "*x = v();", "x = f(u, p, 1);", "x = f(1 * p, u);", "x = f(1,\np,\n2);", "x =\nf(1, p,\n2);", "x = v(\n1);",
    "x\n=\nv();", "x = u(\np * 1);",
    # grammar
    "x = ;", "x = 1", "x 1;", "x = 1 1;", "= 1;", "x = (1;", "x = 1);", "x = ();", "f(1 p);", "f(1, );", "f(, 1);",
    "f(1;", "if x) { }",
    "if (x { }", "if (x) x = 1;", "if (x) { } else x = 1;", "else { }", "while () { }", "do { } while (x)",
    "do { } (x);", "do x = 1; while (x);",
    "for (;) { }", "for (x;;) { }", "for (;;) ;", "switch (x) { }", "switch (x) { x = 1; }",
    "switch (x) { case: break; }",
    "switch (x) { case x: break; }", "switch (x) { case 1 break; }", "switch (x) { case 1: x = 1; }",
    "switch (x) { case 1: }",
    "switch (x) { case 1: L: break; }", "switch (x) { case 1: L: break; break; }",
    "switch (x) { case 1: break; x = 1; }",
    "switch (x) { case 65535: break; }", "switch (x) { case 65536: break; }", "switch (x) { case 1L: break; }",
    "switch (x) { case 0xFFFFU: break; }",
    "switch (x) { case 1UL: break; }", "switch (x) { case -1: break; }",
    "switch (x) { default: break; case 1: break; }", "switch (x) { default break; }",
    "break;", "continue;", "if (x) { break; }", "switch (x) { case 1: continue; break; }",
    "while (x) { break; continue; }", "break", "goto ;",
    "goto 1;", "goto if;", "L:", "L: }", "L: M:", "L:\n#pragma dcc depth 4\nv();", "return", "return 1 2;",
    "return )", "x = a[1];", "a[1] = 2;",
    "x++;", "x--;", "x += 1;", "x = x++ + 1;", "&m = 1;", "(x) = 1;", "*p;", "x;", "1;", "f;", "f(1, p) = 1;",
    "x = (int;", "x = (int) ;",
    "x = (void)1;", "x = (int **)1;", "x = (signed)1;", "x = (unsigned)1;", "x = (signed int)1;", "x = (char)1;",
    "int z;", "x = 1; int z;",
    "auto int z;", "void z;", "x = 1,2;", "x = 1 ? 2;", "x = 1 : 2;", "x = 1 ? 2 : ;", "x = 1 ! 2;", "x = 1 ~ 2;",
    "x = * ;", "x = f(1)(2);", "x = (f)(1);",
    "case 1: ;", "default: ;", "} x = 1;", "{ x = 1; }", "if (x) { x = 1; }}", "while (x) { x = 1;", "const int z;",
    "sizeof(x);", "x = sizeof x;",
    "register int z;", "x = \"a\";", "x = 'a';", "/* */", "// x", "x = 1.5;", "x = 1 # 2;", "x = a.b;", "x = p->b;",
    "x = $;", "x = @;", "\\",
    "#pragma dcc", "#pragma dcc depth", "#pragma dcc depth x", "#pragma dcc depth 4 5", "#pragma dcc depth 4;",
    "#pragma dcc depth 4 ", "#pragma dcc depth\t4",
    "#pragma dcc depth  4", " #pragma dcc depth 4", "\t#pragma dcc depth 4", "x = 1; #pragma dcc depth 4",
    "#pragma dcc depth\n4", "#pragma dcc depth 4 v();",
    "#pragma dcc depth 0x4", "#pragma dcc depth 4U", "#pragma dcc depth 04", "#pragma dcc depth -4",
    "#pragma dcc depth 4294967296", "#pragma dcc depth 4@",
    "#pragma dcc depth @", "#pragma dcc depth 4 @", "#pragma  dcc depth 4", "#pragma dcc depths 4",
    "#pragma dcc  depth 4", "#pragma dcc at 300",
    "#pragma dcc stack 0 1", "#pragma dcc text 1", "#pragma dcc text 2", "#pragma dcc text", "#pragma once",
    "#define x", "# pragma dcc depth 4",
    "if (x) {\n#pragma dcc depth 4\n}", "x =\n#pragma dcc depth 4\n1;",
    "#pragma dcc depth 4\n#pragma dcc depth 5\nv();", "switch (x) { case 1: break;\n#pragma dcc depth 4\n}",
    "switch (x) { case 1:\n#pragma dcc depth 4\nbreak; }", "switch (x) {\n#pragma dcc depth 4\ncase 1: break; }",
    # numbers
    "x = 4294967295;", "x = 4294967296;", "x = 99999999999999999999;", "x = 4294967295UL;", "x = 4294967296UL;",
    "x = 0xFFFFFFFF;", "x = 0x100000000;",
    "x = 0x;", "x = 0X1;", "x = 0x1G;", "x = 00;", "x = 01;", "x = 0;", "x = 0U;", "x = 1u;", "x = 1l;", "x = 1LU;",
    "x = 1UU;", "x = 1LL;", "x = 12ab;",
    "x = 1x;", "x = 0xfFUL;", "x = 0x1U;", "x = 0x1UL;", "x = 0x1L;", "x = 1_;", "x = _1;",
    # operators and bytes
    "x = x<=1;", "x = x<<=1;", "x = x< =1;", "x = x!==1;", "x = x! =1;", "x = x===1;", "x = x&&&m;", "x = x|||1;",
    "x = x|| |1;", "x = x>>>1;", "x = x<>1;",
    "x = 1\t+\t2;", "x = 1\r;", "x = \x801;", "x = \xe9;", "\x00", "x = 1;\x0c", "x = x^1;", "x = 1..2;",
    "x = x?1:2;", "x = x?:2;",
    # two offences
    "u = 1; @", "@ u = 1;", "u = @;", "x = u @", "x = 1 + u @", "x = p * @", "x = -p @", "x = p @", "f(p @",
    "f(p, @", "f(1, p, @", "f(1, p, 2 @", "v(1 @", "v( @", "x = v( @",
    "x = v @", "return @", "return 1 @", "return - @", "u @", "u( @", "u = @", "n = @", "n @", "*n @", "*x @",
    "*1 @", "if (p @", "if (p) @", "while (u @",
    "switch (y @", "switch (y) @", "switch (x) { case 1: break; case 1 @", "switch (x) { default: break; default @",
    "L: ; L @", "L: ; L: @", "goto K @", "goto K; @",
    "goto @", "x = 1 ? p : 2 @", "x = 1 ? p : @", "x = p ? @", "x = p == 1 @", "x = p + p @", "x = (p + p @",
    "x = (p) * @", "x = -(p @", "x = *(1 @", "x = ((u @",
    "x = f @", "x = f( @", "x = 1 + f @", "x = 1 + f(2) @", "x = 1 + u(2);", "x = (u(2));", "x = u (1 @",
    "x = (int)p @", "x = -(int *)p @", "x = -(int *) @", "x = -(int @",
    "x = &n @", "x = &(1 @", "x = !(1 + p @", "x = 1 < p @", "x = u + @", "x = u p;", "x = p q;", "x = p * 2 q;",
    "x = f(1, p) + u;", "u = 1;\nx = ;", "x = ;\nu = 1;",
    "x = p;\nu = 1;", "u = 1;\nx = p;", "x = p; u = 1;", "u = 1; x = p;", "goto K;\nu = 1;", "u = 1;\ngoto K;",
    "goto K;\nx = ;\nK: ;", "goto K;\nx = ;", "goto K;\nx = 1 ? 2 : K : ;",
    "k(1);\nx = ;", "k2(1);\n@", "return 1;\nu = 1;", "x = u = 1;", "u = p * 2;", "p = u * p;", "u(p * 2);",
    "x = v(u);", "return u;", "n = u;", "n = n;", "x = f(p * 2);", "f(u);",
    "f(1, u, u);", "f(l, l);", "x = w(p, u);", "switch (u) { case 1: break; case 1: break; }",
    "switch (p) { case 1: break; case 1: break; }", "if (p) { u = 1; }", "if (u) { x = p; } else { @ }",
    "do { u = 1; } while (p);", "do { x = 1; } while (p) u = 1;", "x =\np\n*\nu\n;", "x\n= p\n* 2\n@;",
    "f(p,\nu,\n@", "return\n1\n@", "u\n(\n@", "x =\nu\n@", "x =\nf\n@", "x =\n1 + f\n(2);",
]


def nested(count, inner, opening, closing):
    return opening * count + inner + closing * count


def deep():
    for count in (199, 200, 201):
        yield f"parentheses {count}", body(f"x = {nested(count, '1', '(', ')')};")
        yield f"parentheses in a call {count}", body(f"dos_putc({nested(count, '65', '(', ')')});")
        yield f"parentheses on lines {count}", body(f"x = {nested(count, '1', '(' + chr(10), ')')};")
        yield f"parentheses cut {count}", body(f"x = {nested(count, '1 @', '(', ')')};")
        yield f"parentheses cut early {count}", body(f"x = {'(' * count} @;")
        yield f"minus {count}", body(f"x = {'- ' * count}1;")
        yield f"minus cut {count}", body(f"x =\n{'- ' * count}\n@;")
        yield f"minus cut behind {count}", body(f"x =\n{'- ' * count}\n1 @;")
        yield f"not and name {count}", body(f"x =\n{'!' * count}\nu;")
        yield f"sum {count}", body(f"x =\n{'1 + ' * count}\n1;")
        yield f"sum cut {count}", body(f"x =\n{'1 + ' * count}\n@;")
        yield f"sum and name {count}", body(f"x =\n{'1 + ' * count}\nu;")
        yield f"name and sum {count}", body(f"x =\nu + {'1 + ' * count}\n1;")
        yield f"conditional {count}", body(f"x =\n{'1 ? 2 :' * count}\n1;")
        yield f"conditional cut {count}", body(f"x =\n{'1 ? 2 :' * count}\n@;")
        yield f"casts {count}", body(f"x =\n{'(int)' * count}\n1;")
        yield f"casts cut {count}", body(f"x =\n{'(int)' * count}\n@;")
        yield f"casts cut in one {count}", body(f"x =\n{'(int)' * count}(\n@;")
        yield f"stars {count}", body(f"{'*' * count}\np = 1;")
        yield f"stars in parentheses {count}", body(f"*{nested(count - 1, 'p', '(', ')')} = 1;")
        yield f"argument {count}", body(f"dos_putc(\n{'1 + ' * count}1);")
        yield f"test {count}", body(f"if (\n{'1 + ' * count}1) {{ }}")
        yield f"blocks {count}", body(nested(count, "\nx = 1;\n", "if (x) { ", "}"))
        yield f"blocks of loops {count}", body(nested(count, "\nbreak;\n", "for (;;) { ", "}"))
        yield f"blocks without a statement {count}", body(nested(count, "\n", "if (x) { ", "}"))
        yield f"blocks with a label {count}", body(nested(count, "\nL: ;\n", "if (x) { ", "}"))
        yield f"blocks with a pragma {count}", body(nested(count, "\n#pragma dcc depth 4\n", "if (x) { ", "}"))
        yield f"blocks with a break {count}", body(nested(count, "\nbreak;\n", "if (x) { ", "}"))
        yield f"blocks with a name {count}", body(nested(count, "\nu = 1;\n", "if (x) { ", "}"))
        yield f"blocks with a token {count}", body(nested(count, "\n@\n", "if (x) { ", "}"))
        for name, arm in (("a switch", "x = 1; break;"), ("an empty arm", "break;")):
            inner = f"\nswitch (x) {{ case 1: \n{arm} }}\n"
            yield f"blocks with {name} {count}", body(nested(count, inner, "if (x) { ", "}"))
        yield f"switches {count}", body(nested(count, "\nx = 1;\n", "switch (x) { case 1: ", "break; }"))


# Whole texts
START = "void start(void)\n{\n}\n"
INNER = HEAD + "#pragma dcc at 256\nint g;\nvoid start(void) { }\n"
WHOLE = [
    "", "\n", "#pragma dcc text 1", "#pragma dcc text 1\n", "#pragma dcc text 1 \n", " #pragma dcc text 1\n",
    "#pragma dcc text 2\n", "#pragma dcc text 3\n", "#pragma dcc text 01\n",
    "#pragma dcc text\n", "#pragma dcc text 1\r\n", "\n#pragma dcc text 1\n", "#pragma dcc text 11\n", "x",
    "#pragma dcc text 1x\n", "#pragma dcc text 1\n\n\n", "#pragma dcc text 1\nx",
    "#pragma dcc text 1\n#pragma dcc stack", "#pragma dcc text 1\n#pragma dcc stack 0",
    "#pragma dcc text 1\n#pragma dcc stack 0 ", "#pragma dcc text 1\n#pragma dcc stack 0 256", HEAD,
    "#pragma dcc text 1\n#pragma dcc at 256\n" + START, "#pragma dcc text 1\n" + START,
    "#pragma dcc text 1\n\n\n#pragma dcc stack 0 256\n" + START,
    "#pragma dcc text 1\n#pragma dcc stack 0\n256\n" + START,
    "#pragma dcc text 1\n#pragma dcc stack\n0 256\n" + START,
    "#pragma dcc text 1\n#pragma dcc stack 0 256 7\n" + START,
    "#pragma dcc text 1\n#pragma dcc stack 0  256\n" + START,
    "#pragma dcc text 1\n#pragma dcc stack 0, 256\n" + START,
    "#pragma dcc text 1\n #pragma dcc stack 0 256\n" + START,
    "#pragma dcc text 1\n#pragma dcc stack 0 256 " + START, "#pragma dcc text 1\n#pragma dcc stack 0 256 \n" + START,
    "#pragma dcc text 1\n#pragma dcc stack 256 0\n" + START,
    "#pragma dcc text 1\n#pragma dcc stack 0 65535\n" + START,
    "#pragma dcc text 1\n#pragma dcc stack 0 65536\n" + START,
    "#pragma dcc text 1\n#pragma dcc stack 65536 0\n" + START,
    "#pragma dcc text 1\n#pragma dcc stack 65536 @\n" + START,
    "#pragma dcc text 1\n#pragma dcc stack 65536\n@\n" + START,
    "#pragma dcc text 1\n#pragma dcc stack 0 65536 @\n" + START,
    "#pragma dcc text 1\n#pragma dcc stack 65536 65536\n@",
    "#pragma dcc text 1\n#pragma dcc stack 0 4294967296\n" + START,
    "#pragma dcc text 1\n#pragma dcc stack 0x0 256\n" + START,
    "#pragma dcc text 1\n#pragma dcc stack 0 256U\n" + START,
    "#pragma dcc text 1\n#pragma dcc stack 0 2@56\n" + START,
    "#pragma dcc text 1\n#pragma dcc stack 0 256\n#pragma dcc stack 0 256\n" + START,
    HEAD + START, HEAD + START.rstrip("\n"), HEAD + START + "x", HEAD + START + "\n\n@", HEAD + START + START,
    HEAD + "int start(void)\n{\n}\n", HEAD + "void main(void)\n{\n}\n",
    HEAD + "void start(int i)\n{\n}\n", HEAD + "void start()\n{\n}\n", HEAD + "int main(int i)\n{\n}\n",
    HEAD + "int\nmain(\n@", HEAD + "int\nmain\n@", HEAD + "int\n@", HEAD + "void\nmain(@", HEAD + "void main @",
    HEAD + "void start(@", HEAD + "void start(\nint @", HEAD + "void start(void @", HEAD + "void start(void);\n",
    HEAD + "void start(void)\n{", HEAD + "start(void)\n{\n}\n", HEAD + "void *start(void)\n{\n}\n",
    HEAD + "int x;\n" + START, HEAD + "int x(void)\n{\n}\n" + START, HEAD + "#pragma dcc at 256\n" + START,
    HEAD + "#pragma dcc at 65536\n" + START, HEAD + "#pragma dcc at 4294967295\n" + START,
    HEAD + "#pragma dcc at 4294967296\n" + START, HEAD + "#pragma dcc at\n256\nint x;\n" + START,
    HEAD + "#pragma dcc at 256\n256\nint x;\n" + START, HEAD + "#pragma dcc at 256 int x;\n" + START,
    HEAD + "#pragma dcc at  256\nint x;\n" + START, HEAD + "#pragma dcc at 256\t\nint x;\n" + START,
    HEAD + "#pragma dcc at 256 // x\n" + START, HEAD + "#pragma dcc at256\n" + START,
    HEAD + "#pragma dcc at x\n" + START, HEAD + "#pragma dcc at 0256\n" + START, HEAD + "#pragma dcc at",
    HEAD + "#pragma dcc at 256", HEAD + "#pragma dcc at 256\nint x;\n",
    HEAD + START + "#pragma dcc at 300\nint z;\n", HEAD + START + "int z;\n", HEAD + START + "#pragma dcc depth 4\n",
]

DECLARATIONS = [
    "int x;", "int x", "int x @", "int @", "int", "signed int x;", "signed", "signed char x;", "unsigned x;",
    "long int x;", "short x;", "char x;", "void x;", "int *x;", "int **x;", "auto int x;",
    "register int x;", "const int x;", "int x, y;", "int x y;", "int 1;", "int if;", "int x[2];", "int x[0];",
    "int x[0", "int x[0 @", "int x[];", "int x[2U];", "int x[0x2];", "int x[2][2];", "int x[-1];",
    "int x[y];", "int x[2", "int x[2 @", "int x[", "int x[00];", "int x = 1;", "int x = {1};", "int x = {1, 2};",
    "int x = {1,\n2};", "int x = {1, 2 @", "int x = {1, @", "int x = {1, 2,\n3};", "int x = {};", "int x = {1,};",
    "int x = -1;", "int x = 1U;", "int x = 0x1;", "int x = 1 + 1;", "int x = y;", "int x = ;", "int x =",
    "int x = 1", "int x = {1", "int x = {1}", "int x[2] = 1;", "int x[2] = {1, 2};", "int x[2] = {1, 2, 3};",
    "int x[2] = {1, 2,\n3, @", "int x[0] = 1;", "int x[0] = {1};", "int x[0]\n= {1};", "int x[2] = {1, 2, 3",
    "int x; int x;", "int x; long x;", "int x;\nint x @", "int dos_putc;", "int dos_exit @", "int start;",
    "int x; x;",
    "int x[32767];", "int x[32640];", "int x[32641];", "int\nx\n[32641]\n;", "int x[32641] @", "int\nx[\n0];",
    "int x[4294967295];", "int x; \n#pragma dcc at 256\nint y;", "int x;\n#pragma dcc at 257\nint y;",
    "int x;\n#pragma dcc at 258\nint y;", "int x;\n#pragma dcc at 255\nunsigned char y;",
    "int x;\n#pragma dcc at 255\nint\ny;", "int x;\n#pragma dcc at 254\nint\ny @",
    "int x;\n#pragma dcc at 10\nint y;",
    "int x;\n#pragma dcc at 10\nint y[0];", "int x;\n#pragma dcc at 10\nint\ny\n[\n0\n];",
    "int x;\n#pragma dcc at 65535\nint y;", "int x;\n#pragma dcc at 65534\nint y;",
    "int x;\n#pragma dcc at 65536\nunsigned char y;",
    "int x;\n#pragma dcc at 65535\nunsigned char y; unsigned char z;", "int x;\n#pragma dcc at 70000\nint y[0];",
    "int x = 70000;", "int *x = 4294967295;", "unsigned char x[2] = {256, 70000};", "int x(int i)\n{\n}\n", "int x(",
    "int dos_puts(", "int x; int x(", "int x; int x @", "int x @; int x;", "int\nx\n[2\n@",
    "int x; #pragma dcc at 300", "\n#pragma dcc at 300\n#pragma dcc at 400\nint x;",
]

LOCALS_ONLY = [
    "int x;", "int x; int x;", "int g;", "int start;", "int later;", "int dos_putc;", "int i;", "int x[0];",
    "int x[0]; int x;", "int x; int x[0];", "int x[\n0 @", "int x = 1;", "int x, y;", "auto x;", "auto int x;",
    "auto auto int x;",
    "register int x;", "int x[2U];", "int x[4294967295];", "int x[70000];", "int x", "int x @", "int x; int x @",
    "int g @", "int later @", "int @", "int", "auto @", "int later; @", "int x[", "int x[2", "int *x[2]; x = 1;",
    "int x(void);",
    "int later(void);", "void x;", "int x; L: int y;", "int x; ; int y;", "long int x;", "unsigned char *x;",
    "unsigned x;", "int x y;", "int goto;", "int a23456789012345678901234567890;",
    "int a234567890123456789012345678901;",
]

PARAMS = [
    "int i", "int i, int i", "int i, int g", "int start", "int h", "int later", "int dos_putc", "register int i",
    "auto int i", "auto register int i", "int", "int i,", "int i j", "int i[2]", "void i", "void, int i",
    "int i, void",
    "int *i", "int **i", "", "...", "int i, ...", "i", "const int i", "register", "int i @", "int i, int i @",
    "int i, int g @", "@", "int later @", "int i = 1", "int (i)", "int later(",
]

# Texts with functions further down, cut or not
LATER = [
    ("x = later(1);", ""), ("x = later(1);", "@"), ("x = later(1);", "int later(int i) { return i; }"),
    ("x = later(1);", "@\nint later(int i) { return i; }"), ("x = later(1);", "int later(int i) { @"),
    ("x = later(1);", "int later(@"), ("x = later(1);", "int later @"), ("x = later(1);", "int @"),
    ("x = later(1);", "int later(int i, @"), ("x = later(p);", "int later(int i) { @"),
    ("x = later(p);", "@ int later(int i) { }"),
    ("x = later(p);", "@ int later(int, int) { }"), ("later(1, 2, 3);", "@ int later(int i) { }"),
    ("later(1, 2, 3);", "@ int later(int i, @"), ("x = later(1);", "@ void later(int i) { }"),
    ("x = later;", "@ void later(int i) { }"),
    ("x = later(1);", "@ later(int i) { }"), ("x = later(1);", "@ signed int later(int i) { }"),
    ("p = later(1);", "@ unsigned int *later(int i) { }"), ("p = later(1);", "@ int *later(int i) { }"),
    ("x = later + 1;", "@ int later(int i) { }"),
    ("x = later + 1;", "@"), ("later = 1;", "@ int later(int i) { }"), ("later = 1;", "@"),
    ("x = later(1);", "void k(int later(int i)) { }"), ("x = later(1);", "void k(void) { int later(int i); }"),
    ("x = later(1);", "int later(int i);"),
    ("goto L;", ""), ("goto L; @", ""), ("goto L; @ L: ;", ""), ("goto L; @ x = 1 ? x : L : 2;", ""),
    ("goto L; @ x = 1 ? L : 2;", ""), ("goto L;", "@ L: ;"), ("goto L; @", "void k(void) { L: ; }"),
    ("goto L; @ L2: ; L", ": ;"), ("goto L; @ L", ""),
    ("goto L; @ case L: ;", ""), ("goto L; L @", ""), ("goto L; L: @", ""), ("goto L; x = L : ;", ""),
    ("goto L; { L: ; }", ""), ("goto L; if (x) { L: ; } @", ""),
    ("dos_putc(1);", "int g(void) { return 1; }"), ("dos_putc(1);", "int dos_putc(void) { return 1; }"),
    ("dos_putc(1);", "int k(void) { return 1; } int k(void) { return 1; }"),
    ("x = g(1);", "int g(int i) { return 1; }"),
    ("x = g(1);", "@ int g(int i) { return 1; }"), ("g = 1;", "@ int g(int i) { return 1; }"),
    ("x = 1;", "int start(void) { return 1; }"), ("start();", ""), ("x = start();", ""),
    ("x = k(1);", "int k(void) { return; }"),
    ("x = 1;", "int k(void) { return; }"), ("x = 1;", "int k(void) { return 1; }"), ("x = 1;", "int k(void) { }"),
    ("x = 1;", "int *k(void) { return 1; }"), ("x = 1;", "int *k(void) { return q; }"),
    ("x = 1;", "long *k(void) { return q; }"),
    ("x = 1;", "int k(void) { return q; }"), ("x = 1;", "int k(void) { return\n@"),
    ("x = 1;", "int k(void) { return q @"), ("x = 1;", "int k(void) { return p; }"),
    ("x = 1;", "void k(void) { return 1; }"), ("L: ;", "void k(void) { goto L; }"),
    ("x = 1;", "void k(int i, register int j, auto int m) { int *o; o = &i; o = &m; }"),
    ("x = 1;", "void k(register int j) { int *o; o = &j; }"), ("x = 1;", "void k(int *i) { int **o; o = &i; }"),
]


def texts():
    """Each text with its name."""
    for n, text in enumerate(WHOLE):
        yield f"whole {n}", text
    for statements in STATEMENTS:
        yield f"statement {statements!r}", body(statements)
        yield f"last statement {statements!r}", HEAD + GLOBALS + "void start(void)\n{\n" + LOCALS + statements
    for declarations in DECLARATIONS:
        yield f"declaration {declarations!r}", HEAD + "#pragma dcc at 256\n" + declarations + "\n" + START
    for declarations in LOCALS_ONLY:
        yield f"local {declarations!r}", INNER + "void k(int i)\n{\n" + declarations + "\n}\nvoid later(void) { }\n"
    for params in PARAMS:
        yield f"parameter {params!r}", INNER + "void h(" + params + ")\n{\n}\nvoid later(void) { }\n"
    for statements, more in LATER:
        yield f"later {statements!r} {more!r}", body(statements, "\n", more)
    yield from deep()
    yield from cuts()


def cuts():
    """A text with one of each construct, cut behind each token."""
    whole = HEAD + GLOBALS + "void start(void)\n{\n" + LOCALS + """    L: x = f(1, p) ;
    *p = (int)y + *(n + 1) * -2 ;
#pragma dcc depth 4
    f(x ? 1 : 2, &m) ;
    if (x == 1) { goto L ; } else { x = 1 ; }
    while (x) { break ; }
    do { continue ; } while (y) ;
    for (;;) { ; }
    switch (x) { case 1: case 2: y = 1 ; break ; default: break ; }
    return ;
}
""" + TAIL
    at = len(HEAD)
    while at < len(whole):
        at += 1
        if whole[at - 1:at] in (" ", "\n", ";", "(", ")"):
            yield f"cut at {at}", whole[:at]
            yield f"token at {at}", whole[:at] + "@" + whole[at:]
            yield f"mark at {at}", whole[:at] + " ] " + whole[at:]
