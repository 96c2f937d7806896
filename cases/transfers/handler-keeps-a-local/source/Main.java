// At a handler the locals have the paths that they had where it was raised: what is opened there is what the static
// field has.

class F {
    void open() {}
    void read() {}
}

final class Main {
    static F kept;

    static F make() {
        return new F();
    }

    public static void main(String[] words) {
        make();
        F a = make();
        kept = a;
        try {
            int n = 1 / words.length;
        } catch (ArithmeticException e) {
            a.open();
            kept.read();
        }
    }
}
