// releases: 8 11 17 21
// refused before: NoStub

/** Switches over enums by the arrays that javac makes for them. */
public class Enums {
    enum Day { MON, TUE, SUN }

    static String of(Day day) {
        switch (day) {
            case MON:
                return "first";
            case SUN:
                return "last";
            default:
                return "between";
        }
    }

    public static void main(String[] words) {
        for (Day each : Day.values()) {
            System.out.println(of(each));
        }
    }
}
