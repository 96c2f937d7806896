// A cast keeps the paths of its slot: what is opened behind it is open.

class F {
    void open() {}
    void read() {}
}

final class Main {
    static F make() {
        return new F();
    }

    public static void main(String[] words) {
        make();
        F a = make();
        Object o = a;
        ((F) o).open();
        a.read();
    }
}
