// When a local is written its paths leave: what is opened by that name is no more the object that is read.

class F {
    void open() {}
    void read() {}
}

final class Main {
    static F make() {
        return new F();
    }

    public static void main(String[] words) {
        F b = make();
        F a = make();
        F c = a;
        c = b;
        c.open();
        a.read();
    }
}
