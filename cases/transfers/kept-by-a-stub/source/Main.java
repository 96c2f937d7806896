// A stub that keeps an argument tells that another cell may hold the object: what is given later is closed.

class F {
    void read() {}
    void close() {}
}

final class Main {
    public static void main(String[] words) {
        F a = new F();
        Lib.keep(a);
        Lib.give().close();
        a.read();
    }
}
