// What an initialiser throws becomes the cause of an error: a cell may have it that no path has, and it is closed
// there.

class F extends RuntimeException {
    void read() {}
    void close() {}
}

class Starter {
    static {
        if (Main.kept != null) {
            throw Main.kept;
        }
    }

    static void start() {}
}

final class Main {
    static F kept;

    public static void main(String[] words) {
        F a = new F();
        kept = a;
        try {
            Starter.start();
        } catch (ExceptionInInitializerError e) {
            ((F) e.getCause()).close();
        }
        a.read();
    }
}
