// A stub keeps its arguments also where it throws: what is given in the handler is closed.

class F {
    void read() {}
    void close() {}
}

final class Main {
    public static void main(String[] words) {
        F a = new F();
        try {
            Lib.keep(a);
        } catch (RuntimeException e) {
            Lib.give().close();
            a.read();
        }
    }
}
