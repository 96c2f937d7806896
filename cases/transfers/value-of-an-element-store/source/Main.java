// All sets are read before a move: where the value of a store into an array is used, the values on the stack change
// their places at once, and the first of them is what is opened.

class F {
    void open() {}
    void read() {}
}

final class Main {
    static F make() {
        return new F();
    }

    public static void main(String[] words) {
        F[] box = new F[1];
        make();
        F a = make();
        F b = box[0] = a;
        b.open();
        a.read();
    }
}
