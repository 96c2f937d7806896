// An initialiser has the paths of static fields: it closes the object that it finds there.

class F {
    void read() {}
    void close() {}
}

class Starter {
    static {
        Main.kept.close();
    }

    static void start() {}
}

final class Main {
    static F kept;

    public static void main(String[] words) {
        F a = new F();
        kept = a;
        Starter.start();
        a.read();
    }
}
