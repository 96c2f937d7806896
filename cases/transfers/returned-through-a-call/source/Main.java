// A value that is returned has the paths of what was returned, and the caller's locals keep theirs: what is opened
// there is open.

class F {
    void open() {}
    void read() {}
}

final class Main {
    static F same(F f) {
        return f;
    }

    public static void main(String[] words) {
        for (int i = 0; i < 2; i++) {
            F a = new F();
            same(a).open();
            a.read();
        }
    }
}
