// The first operand of a handler has the paths of the value that is thrown: what is opened there is the object.

class F extends RuntimeException {
    void open() {}
    void read() {}
}

final class Main {
    static F make() {
        return new F();
    }

    public static void main(String[] words) {
        make();
        F a = make();
        try {
            throw a;
        } catch (F b) {
            b.open();
            a.read();
        }
    }
}
