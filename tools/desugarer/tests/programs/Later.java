// releases: 21
// refused before: BadVersion

/** Switches of Java 21: record patterns, guards, and constants of enums beside types. */
public class Later {
    enum Kind { ONE, TWO }
    sealed interface Shape permits Round, Pair { }
    record Round(int size) implements Shape { }
    record Pair(Shape left, Shape right) implements Shape { }

    static int size(Shape shape) {
        return switch (shape) {
            case Round(int size) when size > 9 -> 100;
            case Round(int size) -> size;
            case Pair(Shape left, Shape right) -> size(left) + size(right);
        };
    }

    static String of(Object each) {
        return switch (each) {
            case null -> "null";
            case Kind kind when kind == Kind.ONE -> "one";
            case Kind kind -> kind.name();
            case String text when text.length() > 2 -> "long";
            case String text -> text;
            default -> "other";
        };
    }

    public static void main(String[] words) {
        System.out.println(size(new Pair(new Round(10), new Pair(new Round(2), new Round(3)))));
        for (Object each : new Object[] {null, Kind.ONE, Kind.TWO, "abc", "ab", 5}) {
            System.out.println(of(each));
        }
    }
}
