// A new object that a stub gives is known by its result alone: what is opened is read, also where the stub has given
// another one before.

class F {
    void open() {}
    void read() {}
}

final class Main {
    static F make() {
        return Lib.make();
    }

    public static void main(String[] words) {
        make();
        F a = make();
        a.open();
        a.read();
    }
}
