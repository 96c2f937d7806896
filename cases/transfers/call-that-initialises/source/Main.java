// Where a call starts an initialiser, its arguments stay as they are, and the call is made after it: what the callee
// opens is what the static field has.

class F {
    void open() {}
    void read() {}
}

class Starter {
    static {
        Main.nothing();
    }

    static void open(F f) {
        f.open();
        Main.kept.read();
    }
}

final class Main {
    static F kept;

    static F make() {
        return new F();
    }

    static void nothing() {}

    public static void main(String[] words) {
        make();
        F a = make();
        kept = a;
        Starter.open(a);
    }
}
