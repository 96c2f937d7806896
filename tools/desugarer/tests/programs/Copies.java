// releases: 8 11 17 21
// refused before: NoStub

/** Clones of arrays: of enums, numbers, objects, and arrays of arrays. */
public class Copies {
    enum Colour { RED, GREEN { @Override String says() { return "go"; } }; String says() { return name(); } }

    interface Numbers {
        int[] FIRST = {1, 2, 3};
        int[] SECOND = FIRST.clone();
        static String[] texts(String[] all) { return all.clone(); }
    }

    static void numbers() {
        boolean[] z = new boolean[] {true}.clone();
        byte[] b = new byte[] {1}.clone();
        char[] c = new char[] {'c'}.clone();
        short[] s = new short[] {2}.clone();
        long[] j = new long[] {3}.clone();
        float[] f = new float[] {4}.clone();
        double[] d = new double[] {5}.clone();
        System.out.println("" + z[0] + b[0] + c[0] + s[0] + j[0] + f[0] + d[0] + Numbers.SECOND[2] + Numbers.SECOND.length);
    }

    static void objects() {
        Object[] texts = new String[] {"a", "b"};
        Object[] copy = texts.clone();
        System.out.println((copy instanceof String[]) + " " + (copy == texts) + " " + copy[1]);
        int[][] rows = {{1}, {2, 3}};
        int[][] same = rows.clone();
        same[0] = new int[] {9, 9};
        System.out.println(rows[0].length + " " + same[0].length + " " + (same[1] == rows[1]));
        Colour[][] squares = {{Colour.RED}};
        System.out.println(squares.clone()[0][0].says());
        System.out.println(Numbers.texts(new String[] {"t"})[0]);
        CharSequence[] wide = new CharSequence[] {"w"};
        System.out.println(wide.clone()[0].length());
    }

    public static void main(String[] words) {
        Colour[] all = Colour.values();
        all[0] = null;
        for (Colour each : Colour.values()) {
            System.out.println(each.says() + each.ordinal());
        }
        numbers();
        objects();
        try {
            int[] none = null;
            System.out.println(none.clone().length);
        } catch (NullPointerException fault) {
            System.out.println("null");
        }
    }
}
