// releases: 8 11 17 21
// refused before: none

/** Texts that are joined, of each type, with constants and null. */
public class Texts {
    static final class Named {
        @Override public String toString() { return "named"; }
    }

    static String join(boolean z, byte b, char c, short s, int i, long j, float f, double d, String text, Object none, Object named) {
        return "z" + z + "b" + b + 'c' + c + s + "i" + i + j + "\1f\2" + f + d + text + none + named + "end";
    }

    static String in(String text) {
        String at = text;
        for (int each = 0; each < 3; each++) {
            at += each;
            if (each > 1) {
                at = "(" + at + ")";
            }
        }
        return at;
    }

    static String nested(int left, long right) {
        return left + ":" + (right > 2 ? "big " + right : "small " + left) + right;
    }

    public static void main(String[] words) {
        System.out.println(join(true, (byte) -1, 'x', (short) 2, 3, 4L, 5.5f, 6.25, "text", null, new Named()));
        System.out.println(in("a"));
        System.out.println(nested(1, 2) + nested(3, 4));
        char[] letters = {'h', 'i'};
        System.out.println(("" + letters).startsWith("[C@"));
        String none = null;
        none += none;
        System.out.println(none);
    }
}
