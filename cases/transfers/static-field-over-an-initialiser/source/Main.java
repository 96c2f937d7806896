// After an initialiser the paths of static fields are those that it had at its end: it left the object there.

class F {
    void open() {}
    void read() {}
}

class Starter {
    static {
        Main.nothing();
    }

    static void start() {}
}

final class Main {
    static F kept;

    static F make() {
        return new F();
    }

    static void nothing() {}

    public static void main(String[] words) {
        make();
        F a = make();
        kept = a;
        Starter.start();
        kept.open();
        a.read();
    }
}
