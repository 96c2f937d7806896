// releases: 8 11 17 21
// refused before: InvokeDynamic

import java.io.Serializable;
import java.util.ArrayList;
import java.util.Arrays;
import java.util.List;

/** Lambdas and method references of each kind: what they capture, what they call, and how values are turned into those of other types. */
public class Lambdas {
    interface Plain { void run(); }
    interface Make<T> { T get(); }
    interface Take<T> { void accept(T each); }
    interface Map<A, B> { B apply(A from); }
    interface Join<A, B, C> { C apply(A left, B right); }
    interface ToInt<T> { int of(T each); }
    interface OfInt<T> { T of(int each); }
    interface IntToLong { long of(int each); }
    interface BoxedToDouble { double of(Integer each); }
    interface CharTest { boolean of(char each); }
    interface Text extends Map<String, String> { String apply(String from); }
    interface Wide<T extends Comparable<T>> { int order(T left, T right); }
    interface Mark { }
    interface Fails { void run() throws Exception; }
    interface WithDefault {
        int number();
        default WithDefault plus(int more) { return () -> number() + more + own(); }
        static WithDefault of(int number) { return () -> number; }
        default int own() { Make<Integer> made = () -> this.number() * 0 + 100; return made.get(); }
    }

    static class Above {
        protected String name() { return "above"; }
    }

    static class Below extends Above {
        @Override protected String name() { return "below"; }
        Make<String> mine() { return this::name; }
        Make<String> ofSuper() { return super::name; }
    }

    /** Two classes with private bodies of the same name, one above the other. */
    static class First {
        int base = 1;
        Make<Integer> made() { return () -> base; }
    }

    static class Second extends First {
        int other = 2;
        @Override Make<Integer> made() { return () -> other * 10 + super.made().get(); }
    }

    static class Pair {
        final String left;
        final int right;
        private Pair(String left, Integer right) { this.left = left; this.right = right; }
        private String both() { return left + right; }
        static Join<String, Integer, Pair> maker() { return Pair::new; }
        static Map<Pair, String> shower() { return Pair::both; }
    }

    enum Sign {
        PLUS((left, right) -> left + right), TIMES((left, right) -> left * right);
        final Join<Integer, Integer, Integer> does;
        Sign(Join<Integer, Integer, Integer> does) { this.does = does; }
    }

    static final Make<String> AT_START = () -> "at the start";
    private int count;
    private int step = 3;

    private static long twice(int value) { return 2L * value; }
    private static int length(CharSequence text) { return text.length(); }
    private static String all(String first, Object... rest) { return first + Arrays.asList(rest); }
    private int stepped(int value) { return value + step; }
    private static Integer boxed(int value) { return value; }
    private static <T> T same(T value) { return value; }

    private Plain counting() {
        return () -> { count += step; Plain inner = () -> count++; inner.run(); };
    }

    static void say(Object text) { System.out.println(String.valueOf(text)); }

    static void captures(boolean z, byte b, char c, short s, int i, long j, float f, double d, String text, int[] array) {
        Make<String> made = () -> "" + z + b + c + s + i + j + f + d + text + array.length;
        say(made.get());
        Join<Long, Double, Double> more = (left, right) -> left + right + j + d + f;
        say(more.apply(4L, 0.5));
    }

    static void conversions() {
        IntToLong widened = Lambdas::boxed;
        say(widened.of(5));
        BoxedToDouble unboxed = Lambdas::twice;
        say(unboxed.of(6));
        OfInt<Object> boxing = Lambdas::twice;
        say(boxing.of(7));
        ToInt<String> length = Lambdas::length;
        say(length.of("four"));
        CharTest letter = Character::isLetter;
        say(letter.of('x'));
        Map<Integer, Integer> both = Lambdas::same;
        say(both.apply(8));
        Take<String> dropped = new ArrayList<String>()::add;
        dropped.accept("dropped");
        Take<Integer> droppedLong = Lambdas::twice;
        droppedLong.accept(3);
        Join<String, String, String> many = Lambdas::all;
        say(many.apply("a", "b"));
        ToInt<Integer> value = Integer::intValue;
        say(value.of(9));
        Wide<String> order = String::compareTo;
        say(order.order("a", "b"));
    }

    static void references() {
        Make<List<String>> list = ArrayList::new;
        List<String> made = list.get();
        Take<String> add = made::add;
        add.accept("one");
        say(made.size() + made.get(0));
        OfInt<int[]> array = int[]::new;
        say(array.of(4).length);
        OfInt<String[][]> arrays = String[][]::new;
        say(arrays.of(2).length);
        Map<int[], int[]> copy = int[]::clone;
        say(copy.apply(new int[] {1, 2}).length);
        say(Pair.shower().apply(Pair.maker().apply("p", 1)));
        say(new Below().mine().get() + new Below().ofSuper().get());
        say(new Second().made().get());
        Lambdas here = new Lambdas();
        ToInt<Integer> step = here::stepped;
        say(step.of(1));
        Plain counting = here.counting();
        counting.run();
        counting.run();
        say(here.count);
        say(WithDefault.of(4).plus(5).number());
        Text upper = text -> text + "!";
        Map<String, String> general = upper;
        say(general.apply("text") + upper.apply("more"));
    }

    static void markers() {
        Plain marked = (Plain & Mark & Serializable) () -> say("marked");
        marked.run();
        say((marked instanceof Mark) + " " + (marked instanceof Serializable));
        Map<String, String> bridged = (Text & Serializable) each -> each + "?";
        say(bridged.apply("bridged"));
    }

    static void faults() {
        Fails fails = () -> { throw new java.io.IOException("thrown"); };
        try {
            fails.run();
        } catch (Exception fault) {
            say(fault.getMessage());
        }
        try {
            String none = null;
            Make<Integer> length = none::length;
            say("not reached");
        } catch (NullPointerException fault) {
            say("null");
        }
        @SuppressWarnings({"unchecked", "rawtypes"}) Map<Object, Object> raw = (Map) (Map<String, Integer>) Lambdas::length;
        try {
            raw.apply(5);
        } catch (ClassCastException fault) {
            say("no text");
        }
    }

    public static void main(String[] words) {
        say(AT_START.get());
        captures(true, (byte) 1, 'c', (short) 2, 3, 4L, 5f, 6d, "seven", new int[8]);
        conversions();
        references();
        markers();
        faults();
        for (Sign each : new Sign[] {Sign.PLUS, Sign.TIMES}) {
            say(each.does.apply(6, 7));
        }
    }
}
