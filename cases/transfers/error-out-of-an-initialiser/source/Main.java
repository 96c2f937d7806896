// What an initialiser throws is not followed to the handler of who started it: what is opened there may be another
// object.

class F extends Error {
    void open() {}
    void read() {}
}

class Starter {
    static {
        if (Main.kept != null) {
            throw Main.kept;
        }
    }

    static void start() {}
}

final class Main {
    static F kept;

    static F make() {
        return new F();
    }

    public static void main(String[] words) {
        make();
        kept = make();
        try {
            Starter.start();
        } catch (F b) {
            b.open();
            kept.read();
        }
    }
}
