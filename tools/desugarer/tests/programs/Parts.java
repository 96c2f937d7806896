// releases: 17 21
// refused before: BadVersion

/** Records and sealed types. */
public class Parts {
    enum Kind { ONE, TWO }

    record All(boolean z, byte b, char c, short s, int i, long j, float f, double d, String text, Kind kind, int[] array) { }
    record None() { }
    record Point(int x, double y) {
        Point { if (x < 0) { throw new IllegalArgumentException("x"); } }
        static Point of(int each) { return new Point(each, -0.0); }
    }
    record Own(String text) {
        @Override public String toString() { return "own " + text; }
    }
    record Of<T extends Comparable<T>>(T each, Of<T> next) { }

    sealed interface Shape permits Round, Square { int size(); }
    record Round(int size) implements Shape { }
    static final class Square implements Shape { public int size() { return 4; } }

    public static void main(String[] words) {
        int[] array = {1};
        All all = new All(true, (byte) 1, 'c', (short) 2, 3, 4L, 5f, 6d, "text", null, null);
        All same = new All(true, (byte) 1, 'c', (short) 2, 3, 4L, 5f, 6d, "te" + "xt", null, null);
        System.out.println(all.toString());
        System.out.println("" + all.equals(same) + (all.hashCode() == same.hashCode()) + all.hashCode());
        All other = new All(true, (byte) 1, 'c', (short) 2, 3, 4L, 5f, 6d, "text", null, array);
        System.out.println("" + all.equals(other) + all.equals(null) + all.equals("text") + all.equals(all));
        System.out.println("" + new None() + new None().hashCode() + new None().equals(new None()));
        System.out.println("" + Point.of(1) + Point.of(1).equals(new Point(1, 0.0)) + new Point(0, Double.NaN).equals(new Point(0, Double.NaN)) + Point.of(3).hashCode());
        System.out.println(new Own("o").toString() + new Of<>("a", new Of<>("b", null)));
        record Local(long each) { }
        System.out.println(new Local(5L) + " " + new Local(5L).hashCode());
        Shape[] shapes = {new Round(3), new Square()};
        for (Shape each : shapes) {
            System.out.println(each.size() + (each instanceof Round round ? " " + round : " square"));
        }
    }
}
