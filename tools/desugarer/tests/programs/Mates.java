// releases: 8 11 17 21
// refused before: none

/** Private members of nest mates: fields, methods, constructors, static ones, of classes and interfaces, above and below. */
public class Mates {
    private int number = 1;
    private static int all = 10;
    private long wide = 5L;
    private final String text;

    private Mates(String text) { this.text = text; }

    private int add(int more) { return number + more; }
    private static String show(Object each) { return "<" + each + ">"; }
    private String same() { return "outer " + text; }

    class Inner {
        private int own = 3;
        private Inner() { number++; }
        private String same() { return "inner " + Mates.this.same(); }
        int sum() { number += 5; all++; wide *= 2; return add(own) + all + (int) wide; }
        private class Deep {
            private int get() { return own + number + add(1); }
        }
    }

    private static class Above {
        private String hidden() { return "above"; }
        private int field = 7;
        String calls() { return hidden(); }
    }

    private static class Below extends Above {
        private String hidden() { return "below"; }
        private int field = 8;
    }

    interface Face {
        int base();
        default int twice() { return base() * 2; }
    }

    private static final class Done implements Face {
        private final int base;
        private Done(int base) { this.base = base; }
        public int base() { return base; }
    }

    public static void main(String[] words) {
        Mates mates = new Mates("text");
        Inner inner = mates.new Inner();
        System.out.println(inner.sum() + inner.own);
        System.out.println(inner.same() + mates.same());
        Inner.Deep deep = inner.new Deep();
        System.out.println(deep.get());
        Below below = new Below();
        Above above = below;
        System.out.println(above.hidden() + below.hidden() + above.calls() + above.field + below.field);
        System.out.println(show(new Done(4).twice()) + new Done(2).base);
        Face made = new Face() {
            private int hidden = 6;
            private int more() { return hidden + all; }
            public int base() { return more(); }
        };
        System.out.println(made.twice());
    }
}
