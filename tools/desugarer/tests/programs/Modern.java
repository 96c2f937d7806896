// releases: 11 17 21
// refused before: BadVersion

/** What came after Java 8 into the language without new class files: private methods of interfaces, var, and accesses to them by lambdas. */
public class Modern {
    interface Face {
        private int hidden(int more) { return base() + more; }
        private static String mark() { return "!"; }
        int base();
        default String shown() {
            Make made = () -> hidden(1) + mark();
            return made.get() + hidden(2) + mark();
        }
    }

    interface Make { String get(); }

    static class Outer {
        private String own() { return "own"; }
        private static String common() { return "common"; }
        Make inner() {
            return new Object() {
                private String both() { return own() + common(); }
                Make get() { return this::both; }
            }.get();
        }
    }

    static String reach(Outer outer) {
        Make first = outer::own;
        Make second = Outer::common;
        return first.get() + second.get();
    }

    public static void main(String[] words) {
        Face face = () -> 40;
        System.out.println(face.shown() + face.hidden(3) + Face.mark());
        var text = "var" + words.length;
        System.out.println(text);
        System.out.println(new Outer().inner().get() + reach(new Outer()));
    }
}
