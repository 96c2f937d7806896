// releases: 17 preview
// refused before: BadVersion

/** Switches over types, with guards and null, and switches over enums and texts. */
public class Cases {
    enum Kind { ONE, TWO, THREE }
    sealed interface Shape permits Round, Square { }
    record Round(int size) implements Shape { }
    record Square(int side) implements Shape { }

    static String of(Object each) {
        return switch (each) {
            case null -> "null";
            case String text && text.length() > 3 -> "long " + text;
            case String text -> "text " + text;
            case Integer number && number > 10 -> "big " + number;
            case Integer number -> "number " + number;
            case int[] array -> "array " + array.length;
            case Kind kind -> "kind " + kind.name();
            case Round round -> "round " + round.size();
            default -> "other";
        };
    }

    static int area(Shape shape) {
        return switch (shape) {
            case Round round -> 3 * round.size() * round.size();
            case Square square -> square.side() * square.side();
        };
    }

    static int old(Kind kind) {
        return switch (kind) {
            case ONE -> 1;
            case TWO -> 2;
            default -> 9;
        };
    }

    static int named(String text) {
        switch (text) {
            case "a":
                return 1;
            case "b":
                return 2;
            default:
                return 0;
        }
    }

    static String mixed(Kind kind) {
        return switch (kind) {
            case ONE -> "one";
            case Kind other && other.ordinal() > 1 -> "late " + other.name();
            case Kind other -> "some " + other.name();
        };
    }

    public static void main(String[] words) {
        Object[] all = {null, "ab", "abcd", 5, 50, new int[3], Kind.TWO, new Round(2), 4L};
        for (Object each : all) {
            System.out.println(of(each));
        }
        System.out.println(area(new Round(2)) + area(new Square(3)) + old(Kind.TWO) + old(Kind.THREE) + named("b"));
        for (Kind each : new Kind[] {Kind.ONE, Kind.TWO, Kind.THREE}) {
            System.out.println(mixed(each));
        }
    }
}
