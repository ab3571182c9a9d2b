// The filter by file. Without this script the page shows every element, and no filter.
(function () {
  'use strict';
  var select = document.getElementById('file');
  var shown = document.getElementById('shown');
  var elements = Array.prototype.slice.call(document.querySelectorAll('.tree li[data-files]'));

  // An element of other files stays, paler, where one below it belongs to the file. Those below come first.
  function show(file) {
    var count = 0;
    elements.slice().reverse().forEach(function (element) {
      var own = file === '' || element.dataset.files.split(' ').indexOf(file) >= 0;
      var below = element.querySelector(':scope > ul > li[data-files]:not([hidden])') !== null;
      element.hidden = !own && !below;
      element.classList.toggle('other', !own && below);
      count += own ? 1 : 0;
    });
    shown.textContent = file === '' ? '' : 'File ' + file + ': ' + count + ' of ' + elements.length + ' elements';
    select.value = file;
  }

  // The filter stands in the page's address too: #file=2.
  function fromAddress() {
    var file = location.hash.replace(/^#file=/, '');
    var known = Array.prototype.some.call(select.options, function (option) { return option.value === file; });
    show(known ? file : '');
  }

  select.addEventListener('change', function () {
    var file = select.value;
    history.replaceState(null, '', file === '' ? location.pathname + location.search : '#file=' + file);
    show(file);
  });
  window.addEventListener('hashchange', fromAddress);
  document.getElementById('filter').hidden = false;
  fromAddress();
})();
